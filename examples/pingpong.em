cores 2
pool p 1 1
eo ping running
eo pong running
queue qping parallel ping normal all
queue qpong parallel pong normal all
boot
alloc v0 p 1 1
send v0 qping
end
body ping receive
send me qpong
end
body pong receive
say word 0
set v1 word 0
free me
if v1
alloc v0 p 1 sub v1 1
send v0 qping
end
end
done
