// An operator without its right side.
// $ refused 6:15
// `;` doesn't belong here
// Write a value in front of it, or take it out.
def main() {
  val n = 1 + ;
}
