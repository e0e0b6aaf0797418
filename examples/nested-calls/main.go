package main

func source() string { return "secret" }
func sink(x string) {}
func first(x string, y string) string { return x }
func second(x string, y string) string { return y }

func main() {
	sink(first("ok", source()))
	sink(second("ok", first(source(), "ok")))
}
