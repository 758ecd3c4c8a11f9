# 84 threads one after another, each of which adds to eight totals in turn: 5,293 subthreads of threads that are hardly there at the
# same time. It prints 2520.
lock tally[8];
record total[8] by tally;
task add() {
  var i, k, $total;
  while i < 30 {
    k = i % 8;
    lock tally[k];
    read total[k] into $total;
    write total[k] = $total + 1;
    unlock tally[k];
    $ret = $ret + 1;
    i = i + 1;
  }
}
task main() {
  var w, $part, $total;
  while w < 84 { w = w + 1; fork add(); join w into $part; $total = $total + $part; }
  print $total;
}
