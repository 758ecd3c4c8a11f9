# Dates of the form 20261201: the number of the day, its weekday (0 for Monday), the days since the row before, and the date that has this number. Where that
# is another date than the row's, the row is no date of the calendar, and its line has the row alone.
feed dates[1] from "dates.csv";
task main() {
  var i, d, m, y, n, before, z, e, f, t, back;
  while i < rows(dates) {
    d = dates[i, 0];
    m = d / 100 % 100;
    y = d / 10000 - (m < 3);
    m = m + 12 * (m < 3);
    n = 365 * y + y / 4 - y / 100 + y / 400 + (153 * m - 457) / 5 + d % 100;
    z = n - 1;
    e = z % 146097;
    y = (e - e / 1460 + e / 36524 - e / 146096) / 365;
    f = e - 365 * y - y / 4 + y / 100;
    m = (5 * f + 2) / 153;
    t = f - (153 * m + 2) / 5 + 1;
    m = m + 3 - 12 * (m >= 10);
    back = 10000 * (z / 146097 * 400 + y + (m < 3)) + 100 * m + t;
    if back == d {
      print i, n, (n + 1) % 7, n - before, back;
      before = n;
    } else {
      print i;
    }
    i = i + 1;
  }
}
