package main

func secret() string { return "token" }
func show(x string) {}

func main() {
	x := secret()
	show(x)
}
