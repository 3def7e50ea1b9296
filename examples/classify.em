cores 2
pool p 3 1
eo reader running
eo worker running
queue arrived atomic reader high all
queue fast parallel worker high all
queue slow parallel worker low all
queue sent output
boot
repeat 3
set v1 add v1 1
alloc v0 p v1 mul v1 100
send v0 arrived
end
end
body reader receive
if eq kind 2
send me slow
else
send me fast
end
end
body worker receive
say word 0
send me sent
end
done
