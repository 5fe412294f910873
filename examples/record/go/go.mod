module check-record

go 1.19
