// Values of two types are compared.
// $ refused 6:23
// an Int and a Boolean are compared
// Compare values of one type.
def main() {
  Console.OUT.println(1 == true);
}
