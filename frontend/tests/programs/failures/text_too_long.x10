// A text has at most 65,535 bytes.
// $ run
// 0: 32768
// 0: text_too_long.x10:8: the text is too long
def main() {
  var s: String = "x";
  for (i in 1..20) {
    s = s + s;
    if (s.length() > 30000) Console.OUT.println(s.length());
  }
  Console.OUT.println("never reached");
}
