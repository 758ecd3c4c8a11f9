# Two threads add to one total, each under its lock.
lock tally[1];
record total[1] by tally;
task add(n) {
  var $t;
  lock tally[0];
  read total[0] into $t;
  write total[0] = $t + n;
  unlock tally[0];
}
task main() {
  fork add(3);
  fork add(4);
  join 1;
  join 2;
}
