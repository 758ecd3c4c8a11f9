# 4,095 threads, each of which adds its number to one total: light subthreads, of which one runs at a time. It prints 8386560.
lock tally[1];
record total[1] by tally;
task add() {
  var $total;
  lock tally[0];
  read total[0] into $total;
  write total[0] = $total + self;
  unlock tally[0];
}
task main() {
  var w, $total;
  while w < 4095 { w = w + 1; fork add(); }
  w = 0;
  while w < 4095 { w = w + 1; join w; }
  lock tally[0];
  read total[0] into $total;
  print $total;
  unlock tally[0];
}
