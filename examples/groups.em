cores 3
pool p 3 0
group odd 2
group outer 5
eo x running
queue one parallel x normal odd
queue two parallel x normal outer
boot
alloc v0 p 1
send v0 one
alloc v0 p 2
send v0 one
alloc v0 p 3
send v0 two
end
body x receive
say core
free me
end
done
