// Place.places() is for loops.
// $ refused 5:25
// this is no value
// Take an expression with a value.
def main() { val them = Place.places(); }
