// A return without a value.
// $ refused 5:21
// `number` gives an Int, and this is none
// Write `return ..;` with a value.
def number(): Int { return; }
def main() {}
