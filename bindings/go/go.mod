module pulleymaroon/cookiestore

go 1.19
