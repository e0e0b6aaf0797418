package main

func source() string { return "secret" }
func sink(x string) {}
func sanitize(x string) string { return x }

func main() {
	a := source()
	sink(sanitize(a))
}
