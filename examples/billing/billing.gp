# Billing: four threads share the rows of a feed of usage. Each row names a customer, a tariff and a number of units; the
# price of a unit stands in a feed of tariffs, in cents. A customer's bill is kept in a record, under the customer's lock.
# Units beyond the tariff's allowance cost double. The bills start at what was left open before.
lock desk[6];
record bill[6] by desk from "open.csv";
feed usage[3] from "usage.csv";
feed tariff[2] from "tariffs.csv";
task charge(first) {
  var i, who, units, price, extra, $due;
  i = first;
  while i < rows(usage) {
    who = usage[i, 0];
    units = usage[i, 2];
    price = tariff[usage[i, 1], 0];
    extra = 0;
    if units > tariff[usage[i, 1], 1] {
      extra = units - tariff[usage[i, 1], 1];
    }
    lock desk[who];
    read bill[who] into $due;
    $due = $due + (units + extra) * price;
    write bill[who] = $due;
    unlock desk[who];
    $ret = $ret + (units + extra) * price;
    i = i + 4;
  }
}
task main() {
  var w, h, $part, $total;
  while w < 4 {
    fork charge(w) into h;
    w = w + 1;
  }
  w = 1;
  while w <= 4 {
    join w into $part;
    $total = $total + $part;
    w = w + 1;
  }
  print $total;
}
