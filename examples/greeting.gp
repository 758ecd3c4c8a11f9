# The smallest useful batch: a few printed numbers.
task main() {
  print 7;
  print 0042;
  print 9223372036854775807;
}
