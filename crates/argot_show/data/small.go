package main

//go:build x
func main() { x := "a\n" + `b
`; _ = x /* y
 */ }
