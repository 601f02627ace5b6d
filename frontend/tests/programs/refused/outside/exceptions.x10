// There are no exceptions.
// $ refused 6:3
// `try` isn't part of the subset
// Nothing can be thrown: what fails prints a line and ends its function. Ask before it, by `if`.
def main() {
  try { Console.OUT.println(1); } catch (e: Exception) {}
}
