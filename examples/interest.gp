# Compound interest on 1,000.00 at 3.5 percent for three years, in cents, rounded down each year.
# Each line has the balance and the interest of that year.
task main() {
  var $balance, $interest;
  $balance = 100000;
  $interest = $balance * 35 / 1000;
  $balance = $balance + $interest;
  print $balance, $interest;
  $interest = $balance * 35 / 1000;
  $balance = $balance + $interest;
  print $balance, $interest;
  $interest = $balance * 35 / 1000;
  $balance = $balance + $interest;
  print $balance, $interest;
}
