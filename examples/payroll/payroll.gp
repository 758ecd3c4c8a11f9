# Payroll of a month. A row of staff has a department, hours in tenths, cents for an hour, and children. Hours beyond 160 count half
# as much again. Tax goes by brackets of the year's gross, with 200.00 free for each child: it is the tax on the year with this
# month less the tax on the year before it. Social insurance is 9.3 percent of at most 7,550.00. A line is a payslip: employee, gross,
# tax, social insurance, net. The year's gross of each employee and the totals of each department are records.
lock file[60];
record year[60] by file from "year.csv";
lock department[5];
record cost[5] by department;
record heads[5] by department;
feed staff[4] from "staff.csv";
feed brackets[2] from "brackets.csv";
task clerk(first) {
  var i, b, where, gross, free, extra, $year, $tax, $social, $net, $before;
  i = first;
  while i < rows(staff) {
    where = staff[i, 0];
    gross = staff[i, 1] * staff[i, 2] / 10;
    if staff[i, 1] > 1600 {
      gross = gross + (staff[i, 1] - 1600) * staff[i, 2] / 20;
    }
    free = 20000 * staff[i, 3];
    lock file[i];
    read year[i] into $year;
    write year[i] = $year + gross;
    unlock file[i];
    # Each bracket adds the percents that it has more than the one before, on what lies above its lower end.
    $tax = 0;
    b = 0;
    while b < rows(brackets) {
      extra = brackets[b, 1];
      if b > 0 {
        extra = extra - brackets[b - 1, 1];
      }
      when $year + gross - free > brackets[b, 0] {
        $tax = $tax + ($year + gross - free - brackets[b, 0]) * extra;
      }
      when $year > brackets[b, 0] {
        $tax = $tax - ($year - brackets[b, 0]) * extra;
      }
      b = b + 1;
    }
    $tax = $tax / 100;
    when $tax < 0 {
      $tax = 0;
    }
    $social = gross * 93 / 1000;
    when gross > 755000 {
      $social = 755000 * 93 / 1000;
    }
    $net = gross - $tax - $social;
    print i, gross, $tax, $social, $net;
    lock department[where];
    read cost[where] into $before;
    write cost[where] = $before + gross + $social;
    read heads[where] into $before;
    write heads[where] = $before + 1;
    unlock department[where];
    $ret = $ret + $net;
    i = i + 3;
  }
}
task main() {
  var w, $part, $paid;
  while w < 3 {
    fork clerk(w);
    w = w + 1;
  }
  w = 1;
  while w <= 3 {
    join w into $part;
    $paid = $paid + $part;
    w = w + 1;
  }
  print $paid;
}
