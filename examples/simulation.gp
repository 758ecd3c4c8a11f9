# A simulation: eight threads each draw 500,000 numbers from a seed of their own and count those above 0. A fork comes only
# after the one before it, so the threads meet at a barrier before they begin to count: from there all eight may run at once.
barrier start(8);
task draws(seed) {
  var i, $number, $above;
  barrier start;
  $number = seed;
  while i < 500000 {
    $number = $number * 6364136223846793005 + 1442695040888963407;
    when $number > 0 { $above = $above + 1; }
    i = i + 1;
  }
  $ret = $above;
}
task main() {
  var w, $part, $total;
  while w < 8 { w = w + 1; fork draws(w); }
  w = 1;
  while w <= 8 { join w into $part; print $part; $total = $total + $part; w = w + 1; }
  print $total;
}
