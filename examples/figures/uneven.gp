# 64 threads that meet at a barrier and then loop: the first a hundred times as long as each of the others, five times over.
barrier start(64);

task worker(me) {
  var round, i, n, $x;
  n = 9000 + (me == 0) * 891000;
  while round < 5 {
    barrier start;
    i = 0;
    while i < n {
      $x = $x * 6364136223846793005 + 1442695040888963407;
      i = i + 1;
    }
    round = round + 1;
  }
  print $x;
}

task main() {
  var w;
  while w < 64 {
    fork worker(w);
    w = w + 1;
  }
  w = 1;
  while w <= 64 {
    join w;
    w = w + 1;
  }
}
