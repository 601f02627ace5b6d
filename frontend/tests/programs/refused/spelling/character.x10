// A character that no word has.
// $ refused 6:13
// `#` doesn't belong here
// Take it out.
def main() {
  val n = 1 # 2;
}
