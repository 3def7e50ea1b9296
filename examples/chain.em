cores 1
pool p 2 1
eo first running
eo second running
queue qfirst parallel first normal all
queue qsecond parallel second normal all
boot
alloc v0 p 3 40
send v0 qfirst
end
body first receive
say word 0
send me qsecond
end
body second receive
say add word 0 2
free me
end
done
