# Settlement at the end of a day. A row of trades has a buyer, a seller, a number of bonds, and the price of one in cents. A trade
# settles where the seller has the bonds and the buyer stays within his limit of credit: bonds and cash change hands. Else it is
# rejected, and a line tells its row, from 0, and why: 1 buyer and seller are one member, 2 too few bonds, 3 past the limit, 5 both.
# Four threads share the rows, so trades are settled in the order of the token and not in that of the feed.
lock member[8];
record cash[8] by member from "cash.csv";
record bonds[8] by member from "bonds.csv";
lock board[1];
record settled[1] by board;
record rejected[1] by board;
record turnover[1] by board;
feed trades[4] from "trades.csv";
feed limits[1] from "limits.csv";
task settler(first) {
  var i, buyer, seller, low, high, units, amount;
  var $low_cash, $high_cash, $low_bonds, $high_bonds, $why, $settled, $rejected, $turnover, $before;
  i = first;
  while i < rows(trades) {
    buyer = trades[i, 0];
    seller = trades[i, 1];
    units = trades[i, 2];
    amount = units * trades[i, 3];
    if buyer == seller {
      print i, 1;
      $rejected = $rejected + 1;
    } else {
      low = buyer;
      high = seller;
      if seller < buyer {
        low = seller;
        high = buyer;
      }
      # The locks are taken in rising order, and the cells are named as the locks are, whichever role they have.
      lock member[low];
      lock member[high];
      read cash[low] into $low_cash;
      read cash[high] into $high_cash;
      read bonds[low] into $low_bonds;
      read bonds[high] into $high_bonds;
      if buyer == low {
        $why = 2 * ($high_bonds < units) + 3 * ($low_cash - amount < 0 - limits[buyer, 0]);
        when $why == 0 {
          write cash[low] = $low_cash - amount;
          write cash[high] = $high_cash + amount;
          write bonds[low] = $low_bonds + units;
          write bonds[high] = $high_bonds - units;
        }
      } else {
        $why = 2 * ($low_bonds < units) + 3 * ($high_cash - amount < 0 - limits[buyer, 0]);
        when $why == 0 {
          write cash[high] = $high_cash - amount;
          write cash[low] = $low_cash + amount;
          write bonds[high] = $high_bonds + units;
          write bonds[low] = $low_bonds - units;
        }
      }
      when $why == 0 {
        $settled = $settled + 1;
        $turnover = $turnover + amount;
      } else {
        print i, $why;
        $rejected = $rejected + 1;
      }
      unlock member[high];
      unlock member[low];
    }
    i = i + 4;
  }
  lock board[0];
  read settled[0] into $before;
  write settled[0] = $before + $settled;
  read rejected[0] into $before;
  write rejected[0] = $before + $rejected;
  read turnover[0] into $before;
  write turnover[0] = $before + $turnover;
  unlock board[0];
}
task main() {
  var w;
  while w < 4 {
    fork settler(w);
    w = w + 1;
  }
  w = 1;
  while w <= 4 {
    join w;
    w = w + 1;
  }
}
