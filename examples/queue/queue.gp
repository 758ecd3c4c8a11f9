# A queue before one desk, simulated by eight threads, a day each. A row of days has a seed, the mean time between two customers
# and the mean time of service, in seconds; both times are drawn evenly from 0 to twice their mean. A line is: day, customers who
# waited, sum of their waits, longest wait, end of the last service. The threads meet at a barrier: from there on, all eight may
# run at once.
barrier open(8);
feed days[3] from "days.csv";
lock book[1];
record served[1] by book;
record waited[1] by book;
record longest[1] by book;
task day(d, customers) {
  var i, $number, $clock, $free, $wait, $count, $sum, $longest, $before;
  barrier open;
  $number = days[d, 0];
  while i < customers {
    $number = $number * 6364136223846793005 + 1442695040888963407;
    $clock = $clock + ($number / 4294967296 % 32768 + 32768) % 32768 * 2 * days[d, 1] / 32768;
    $wait = 0;
    when $free > $clock {
      $wait = $free - $clock;
      $count = $count + 1;
    }
    $number = $number * 6364136223846793005 + 1442695040888963407;
    $free = $clock + $wait + ($number / 4294967296 % 32768 + 32768) % 32768 * 2 * days[d, 2] / 32768;
    $sum = $sum + $wait;
    when $wait > $longest {
      $longest = $wait;
    }
    i = i + 1;
  }
  print d, $count, $sum, $longest, $free;
  lock book[0];
  read served[0] into $before;
  write served[0] = $before + customers;
  read waited[0] into $before;
  write waited[0] = $before + $count;
  read longest[0] into $before;
  when $longest > $before {
    write longest[0] = $longest;
  }
  unlock book[0];
}
task main() {
  var w;
  while w < 8 {
    fork day(w, 20000);
    w = w + 1;
  }
  w = 1;
  while w <= 8 {
    join w;
    w = w + 1;
  }
}
