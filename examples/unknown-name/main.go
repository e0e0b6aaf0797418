package main

func source() string { return "secret" }
func sink(x string) {}

func main() {
	x := source()
	sink(y)
}
