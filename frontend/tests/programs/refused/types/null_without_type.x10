// null alone has no type.
// $ refused 5:22
// this has no type
// Write the type: `o: C`.
def main() { val o = null; }
