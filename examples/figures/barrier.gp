# 4,095 threads that meet at a barrier twice: light subthreads that may all run side by side. It prints 8190.
barrier meeting(4095);
task meet() {
  barrier meeting;
  $ret = $ret + 1;
  barrier meeting;
  $ret = $ret + 1;
}
task main() {
  var w, $part, $total;
  while w < 4095 { w = w + 1; fork meet(); }
  w = 0;
  while w < 4095 { w = w + 1; join w into $part; $total = $total + $part; }
  print $total;
}
