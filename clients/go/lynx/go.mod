module lynx.internal/lynx

go 1.19
