"""The text of a large program: loops over the input, one behind the other, with choices and loops inside. Whatever the input, no
index is out of its range and no number grows, so that a run goes through all of it."""

LOOP = """\
  i = 0;
  while (i < input_len) {
    x = (input[i] % 1000 + @K@) % 97;
    if (x > @X@ && a[(x + 97) % 97] < 1000) {
      a[(x + 97) % 97] = a[(x + 97) % 97] + 1;
      s = (s + x * @K@) % 9973;
    } else {
      j = 0;
      while (j < (x + 97) % @N@) {
        b[j] = (b[j] * 3 + s) % 1009;
        t = (t - b[@N@ - 1 - j]) % 8191;
        j = j + 1;
      }
    }
    if (x % 32 == 0 || s == @K@) { print(s + t); }
    i = i + 1;
  }
  print(a[@X@] - t);
"""
SITES = 15  # so many has each loop with the statements around it


def large_text(sites):
    """A text with at least so many sites."""
    lines = ["int a[97]; int b[8]; int s; int t; int i; int j; int x;", "int main() {"]
    for number in range(-(-sites // SITES)):
        values = {"K": number * 7 + 1, "X": number % 50, "N": number % 7 + 2}
        loop = LOOP
        for name, value in values.items():
            loop = loop.replace("@%s@" % name, str(value))
        lines += loop.splitlines()
    return "\n".join(lines + ["}", ""])
