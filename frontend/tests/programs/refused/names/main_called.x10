// main isn't called.
// $ refused 5:15
// main is called
// A run begins with it. Put what it does into another def.
def again() { main(); }
def main() { again(); }
