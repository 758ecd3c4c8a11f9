# Settling: payments go to the account that the customer's record names. Which account that is stands in a record, so it is
# data; a settle makes it an index, once all work before it has retired. At the end a batch that has collected enough pays
# a bonus, so that what it does next depends on a total.
lock desk[3];
record route[3] by desk from "routes.csv";
lock bank[4];
record acct[4] by bank from "accounts.csv";
feed payments[2] from "payments.csv";
task pay(first) {
  var i, who, to, $to, $sum;
  i = first;
  while i < rows(payments) {
    who = payments[i, 0];
    lock desk[who];
    read route[who] into $to;
    unlock desk[who];
    settle $to into to;
    lock bank[to];
    read acct[to] into $sum;
    write acct[to] = $sum + payments[i, 1];
    unlock bank[to];
    i = i + 2;
  }
}
task main() {
  var collected, $sum;
  fork pay(0);
  fork pay(1);
  join 1;
  join 2;
  lock bank[3];
  read acct[3] into $sum;
  unlock bank[3];
  settle $sum into collected;
  if collected >= 1000 {
    lock bank[0];
    write acct[0] = collected / 10;
    unlock bank[0];
    print collected, collected / 10;
  } else {
    print collected;
  }
}
