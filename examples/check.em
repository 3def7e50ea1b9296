# An event group, a send with it, and the start of an object: none of them runs yet.
cores   2

pool p 4 1
group  g  3
agroup a g
eo x
  # the queues
queue q atomic x high in a
queue u unscheduled
egroup e

body x receive
   if  lt  word 0  3
      sendg me q e
   else
      cell 0  add cell 0 1
      free me
   end
end

# the boot body, which stands first where it is written
boot
   alloc v0 p 1 2
   start x note v0 q
end
done
