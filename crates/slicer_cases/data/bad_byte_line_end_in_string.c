"ab
"