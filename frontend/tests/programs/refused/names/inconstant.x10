// A constant is made from constants.
// $ refused 5:16
// the value of `P` is no constant
// A static val is a number, a truth value or a text, made from constants.
static val P = here.id;
def main() {}
