# Moves in the order of the feed, account by account: a withdrawal is posted only where the account has as much by then, so an earlier row must come first.
# Each of four threads goes through all rows and does those of its own accounts, so that no two of them do rows of one account. A line is row, account, amount,
# and 1 where it was posted; a row of no account has its number and account alone.
lock bank[9];
record acct[9] by bank from "acct.csv";
feed moves[2] from "moves.csv";
barrier start(4);
task post(mine) {
  var i, who, $have, $good;
  barrier start;
  while i < rows(moves) {
    who = moves[i, 0];
    if (who % 4 + 4) % 4 == mine {
      if who >= 0 and who < 9 {
        lock bank[who];
        read acct[who] into $have;
        $good = $have + moves[i, 1] >= 0;
        write acct[who] = $have + moves[i, 1] * $good;
        print i, who, moves[i, 1], $good;
        unlock bank[who];
      } else {
        print i, who;
      }
    }
    i = i + 1;
  }
}
task main() {
  var t;
  while t < 4 {
    fork post(t);
    t = t + 1;
  }
  t = 1;
  while t <= 4 {
    join t;
    t = t + 1;
  }
}
