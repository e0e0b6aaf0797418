package main

func source() string { return "secret" }
func sink(x string) {}
func id(x string) string { return x }

func main() {
	a := id(source())
	b := id("ok")
	sink(a)
	sink(b)
}
