cwlVersion: v1.2
class: CommandLineTool
doc: Writes the lines of one file, and of a second one if there is one, and one of its own; and a log that has them too.
baseCommand: [sh, -c, 'cat "$@" /proc/sys/kernel/random/uuid > log.txt; cat "$@" /proc/sys/kernel/random/uuid', one]
hints:
  SoftwareRequirement: {packages: {coreutils: {version: ['9.1']}}}
inputs:
  read: {type: File, inputBinding: {position: 1}}
  second: {type: 'File?', inputBinding: {position: 2}}
outputs:
  made: stdout
  log: {type: File, outputBinding: {glob: log.txt}}
