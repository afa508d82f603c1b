module bench

go 1.19

require (
	example.org/kombilad v0.0.0
	github.com/fxamacker/cbor/v2 v2.4.0
)

require github.com/x448/float16 v0.8.4 // indirect

replace (
	example.org/kombilad => ../
	github.com/fxamacker/cbor/v2 => /usr/share/gocode/src/github.com/fxamacker/cbor
	github.com/x448/float16 => /usr/share/gocode/src/github.com/x448/float16
)
