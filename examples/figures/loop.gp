# 64 threads, each of which goes through its 1,024 of 65,536 accounts, a lock each: light subthreads that may run side by side. It
# prints 65536.
lock guard[65536];
record account[65536] by guard;
task deposit(first) {
  var i, $amount;
  i = first;
  while i < first + 1024 {
    lock guard[i];
    read account[i] into $amount;
    write account[i] = $amount + 1;
    unlock guard[i];
    $ret = $ret + 1;
    i = i + 1;
  }
}
task main() {
  var w, $part, $total;
  while w < 64 { fork deposit(w * 1024); w = w + 1; }
  w = 0;
  while w < 64 { w = w + 1; join w into $part; $total = $total + $part; }
  print $total;
}
