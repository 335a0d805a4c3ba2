cwlVersion: v1.2
class: CommandLineTool
doc: Writes all lines of the files that it reads, and one of its own that no other execution writes.
baseCommand: [sh, -c, 'cat "$@" /proc/sys/kernel/random/uuid', stamp]
inputs:
  read: {type: 'File[]', inputBinding: {}}
  note: {type: 'string?'}
outputs:
  made: stdout
