module renamer

go 1.19
