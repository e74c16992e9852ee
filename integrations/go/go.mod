module exprlang

go 1.19
