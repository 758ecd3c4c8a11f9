# A month's interest and fees over accounts whose balances are a feed: no lock is needed, so the whole stretch of a thread is one
# subthread. A row of kind is the kind of account of the same number. A row of terms has the yearly interest on a balance in
# hundredths of a percent, that on a debt, the fee of a month, and the balance above which no fee is due. A line is an account
# and its new balance: without the last line, and with commas for spaces, the lines are the feed of the next month. Then comes the
# sum of all balances.
barrier start(4);
lock books[1];
record paid[1] by books;
record earned[1] by books;
record fees[1] by books;
feed account[2] from "acct.csv";
feed kind[1] from "kind.csv";
feed terms[4] from "terms.csv";
task month(first, end) {
  var i, k, balance, interest, fee, paid, earned, fees, $before;
  barrier start;
  i = first;
  while i < end {
    balance = account[i, 1];
    k = kind[account[i, 0], 0];
    interest = balance * terms[k, 0] / 120000;
    if balance < 0 {
      interest = balance * terms[k, 1] / 120000;
    }
    fee = terms[k, 2];
    if balance > terms[k, 3] {
      fee = 0;
    }
    balance = balance + interest - fee;
    print account[i, 0], balance;
    if interest > 0 {
      paid = paid + interest;
    } else {
      earned = earned - interest;
    }
    fees = fees + fee;
    $ret = $ret + balance;
    i = i + 1;
  }
  lock books[0];
  read paid[0] into $before;
  write paid[0] = $before + paid;
  read earned[0] into $before;
  write earned[0] = $before + earned;
  read fees[0] into $before;
  write fees[0] = $before + fees;
  unlock books[0];
}
task main() {
  var w, $part, $sum;
  while w < 4 {
    fork month(rows(account) * w / 4, rows(account) * (w + 1) / 4);
    w = w + 1;
  }
  w = 1;
  while w <= 4 {
    join w into $part;
    $sum = $sum + $part;
    w = w + 1;
  }
  print $sum;
}
