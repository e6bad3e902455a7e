# GDB on the machine of a script. What the target shows may change while it is stopped, when its past is changed, so
# nothing of it is kept.
set stack-cache off
set code-cache off
# A large script takes its time to be entered.
set remotetimeout 300
# Registers belong to the run, so no function can be called. GDB would poke the stack before it is told so.
set may-call-functions off
set confirm off
set pagination off

define goto
  monitor goto $arg0
  reverse-stepi
end
document goto
goto N, goto +N, goto -N: shows the machine at a step.
end

define onestep
  monitor onestep
  reverse-stepi
end
document onestep
One step of the machine: an instruction, an annulled slot, a trap or an interrupt. (stepi runs a handler to its end.)
end

define reload
  symbol-file target:/workbench.elf
  maintenance flush source-cache
end
document reload
Reads labels and lines again, after an edit of the source.
end

define wbt
  monitor windows on
  maintenance flush register-cache
  backtrace
  monitor windows off
  maintenance flush register-cache
end
document wbt
A backtrace through register windows that are not saved yet.
end
