# An amount divided by a number above 0, rounded to a whole number: with halves away from 0, with halves up, and with halves to the even number.
feed shares[2] from "shares.csv";
task main() {
  var i, a, d, n, m, q, r, away, up;
  while i < rows(shares) {
    a = shares[i, 0];
    d = shares[i, 1];
    away = (2 * a + d * (a >= 0) - d * (a < 0)) / (2 * d);
    n = 2 * a + d;
    m = 2 * d;
    up = (n - (n % m + m) % m) / m;
    q = a / d;
    r = 2 * (a - q * d);
    q = q + (r > d or r == d and q % 2 != 0) - (r < -d or r == -d and q % 2 != 0);
    print a, d, away, up, q;
    i = i + 1;
  }
}
