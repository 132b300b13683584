x
'a