# awk -v words='lanes K J' -f lanes-order.awk INPUT OUTPUT: whether `lanes K J` may write this output of this input, whose
# objects are cells, queues and lists. In the input each row stands on a line of its own, as `{name="c", kind="cell"},`,
# `{name="q", kind="queue", capacity=4},`, `{name="l", kind="list", capacity=4},` and `{name="t", period=9, body=["add c 1", "take q"]},`.
#
# Each task makes the operations of its jobs, once and in order. The tag of each object counts the calls on it that are loud;
# one that changes nothing is quiet and has the tag that it finds. Each reply is the one that the lines above make. Of the
# lines that may stand at a place, the one of the first task stands there: a quiet one at its tag, and a loud one when no
# quiet one of the tag before is left. At the end come the objects as all lines have left them, and the number of lines.

function fault(text) {
  print "  line " FNR ": " text
  failed = 1
  exit 1
}

# the reply of the call on a list, which is made; and whether the call is quiet with it
function reply_of_list(list, call, k,   at, count, there, values) {
  count = split(state[list], values, " ")
  for (at = 1; at <= count && values[at] + 0 < k + 0; at++);
  there = at <= count && values[at] + 0 == k + 0
  quiet = 1
  if (call == "has") return there ? "yes" : "no"
  if (call == "insert" && there) return "present"
  if (call == "insert" && count == capacity[list]) return "full"
  if (call == "remove" && !there) return "absent"
  quiet = 0
  held[list] = count + (call == "insert" ? 1 : -1)
  values[at] = call == "remove" ? "" : k + 0 (at <= count ? " " values[at] : "")
  state[list] = ""
  for (at = 1; at in values; at++)
    if (values[at] != "") state[list] = state[list] (state[list] == "" ? "" : " ") values[at]
  return call == "insert" ? "added" : "removed"
}

# the reply of the call on an object, which is made; and whether the call is quiet with it
function reply(cell, call, one, two) {
  if (call == "insert" || call == "remove" || call == "has") return reply_of_list(cell, call, one)
  quiet = 1
  if (call == "put" && held[cell] == capacity[cell]) return "full"
  if (call == "take" && !held[cell]) return "empty"
  if (call == "put" || call == "take") quiet = 0
  if (call == "put") {
    state[cell] = state[cell] (held[cell] ? " " : "") one + 0
    return "done " (++held[cell])
  }
  if (call == "take") {
    split(state[cell], values, " ")
    state[cell] = --held[cell] ? substr(state[cell], index(state[cell], " ") + 1) : ""
    return "done " values[1]
  }
  if (call == "add" && state[cell] + one > 16777215) return "over"
  if (call == "swap" && state[cell] != one) return "differs " state[cell]
  quiet = call == "get" || call == "add" && one + 0 == 0 || call == "swap" && one + 0 == two + 0
  if (call == "set") state[cell] = one
  else if (call == "add") state[cell] += one
  else if (call == "swap") state[cell] = two
  return "done " state[cell]
}

# The operations of each task, by their number from 1, each with the number of its item.
NR == FNR {
  parts = split($0, part, "\"")
  if (part[4] == "cell" || part[4] == "queue" || part[4] == "list") {
    objects[++object_count] = part[2]
    kind[part[2]] = part[4]
    state[part[2]] = part[4] == "cell" ? 0 : ""
    tag[part[2]] = placed[part[2]] = held[part[2]] = 0
    if (match($0, /capacity=[0-9]+/)) capacity[part[2]] = substr($0, RSTART + 9, RLENGTH - 9) + 0
  } else if (/body=/) {
    tasks[++task_count] = part[2]
    for (at = 4; at <= parts; at += 2)
      if (part[at] !~ /^work /) {
        item[part[2], ++operations[part[2]]] = at / 2 - 1
        text[part[2], operations[part[2]]] = part[at]
      }
  }
  next
}

FNR == 1 {
  begun = 1
  split(words, word, " ")
  jobs = word[3]
  for (at = 1; at <= task_count; at++) calls += jobs * operations[tasks[at]]
  if ($0 != "lanes " word[2] " jobs " jobs) fault("it is not the first line of " words)
  next
}

FNR <= calls + 1 {
  number = made[$1]++
  if (number >= jobs * operations[$1]) fault("no call is left to " $1)
  place = number % operations[$1] + 1
  split(text[$1, place], call, " ")
  line = $1 " " int(number / operations[$1]) + 1 " " item[$1, place] " " text[$1, place] " -> "
  line = line reply(call[2], call[1], call[3], call[4])
  if (quiet) left[call[2], tag[call[2]]]++
  else tag[call[2]]++
  line = line " tag " tag[call[2]]
  if ($0 != line) fault("it is not: " line)
  owner[FNR] = $1
  cell[$1, number] = call[2]
  its_tag[$1, number] = tag[call[2]]
  is_quiet[$1, number] = quiet
  next
}

FNR <= calls + 1 + object_count {
  name = objects[FNR - calls - 1]
  line = "object " name " " kind[name] " tag " tag[name] " state" (kind[name] == "cell" || held[name] ? " " state[name] : "")
  if ($0 != line) fault("it is not: " line)
  next
}

FNR == calls + object_count + 2 && $0 == "total calls " calls { next }

{ fault("it is not the end") }

# the next line of a task: the object that it calls, its tag, and whether it is quiet; no object where no line is left
function look_at(at) {
  next_cell[at] = ""
  if ((tasks[at], taken[at]) in its_tag) {
    next_cell[at] = cell[tasks[at], taken[at]]
    next_tag[at] = its_tag[tasks[at], taken[at]]
    next_quiet[at] = is_quiet[tasks[at], taken[at]]
  }
}

# whether the next line of a task may stand at the next place
function ready(at) {
  if (next_cell[at] == "") return 0
  if (next_quiet[at]) return next_tag[at] == placed[next_cell[at]]
  return next_tag[at] == placed[next_cell[at]] + 1 && !left[next_cell[at], placed[next_cell[at]]]
}

END {
  if (failed) exit 1
  if (!begun || FNR != calls + object_count + 2) fault("nothing follows it")
  for (at = 1; at <= task_count; at++) {
    taken[at] = 0
    look_at(at)
  }
  for (FNR = 2; FNR <= calls + 1; FNR++) {
    for (at = 1; at <= task_count; at++)
      if (ready(at)) break
    if (owner[FNR] != tasks[at]) fault("a line of " tasks[at] " may stand there")
    if (next_quiet[at]) left[next_cell[at], placed[next_cell[at]]]--
    else placed[next_cell[at]]++
    taken[at]++
    look_at(at)
  }
}
