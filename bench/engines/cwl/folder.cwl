cwlVersion: v1.2
class: Workflow
doc: A step that makes a folder, one that reads it, one that reads a file of it; a file with a second one beside it, as an index is.
requirements: {InlineJavascriptRequirement: {}, StepInputExpressionRequirement: {}}
inputs: {a: File, b: File}
outputs:
  all: {type: File, outputSource: whole/made}
  one: {type: File, outputSource: part/made}
steps:
  split:
    in: {read: a}
    out: [folder]
    run:
      class: CommandLineTool
      baseCommand: [sh, -c, 'mkdir parts; for n in 1 2; do cat "$1" /proc/sys/kernel/random/uuid > parts/$n.txt; done', split]
      inputs: {read: {type: File, inputBinding: {}}}
      outputs: {folder: {type: Directory, outputBinding: {glob: parts}}}
  whole:
    in: {folder: split/folder}
    out: [made]
    run:
      class: CommandLineTool
      baseCommand: [sh, -c, 'cat "$1"/1.txt "$1"/2.txt /proc/sys/kernel/random/uuid', whole]
      inputs: {folder: {type: Directory, inputBinding: {}}}
      outputs: {made: stdout}
  part: {run: one.cwl, in: {folder: split/folder, read: {valueFrom: '$(inputs.folder.listing[1])'}}, out: [made, log]}
  index:
    in: {read: b}
    out: [bam]
    run:
      class: CommandLineTool
      baseCommand: [sh, -c, 'cat "$1" /proc/sys/kernel/random/uuid > x.bam; cat x.bam /proc/sys/kernel/random/uuid > x.bam.bai', index]
      inputs: {read: {type: File, inputBinding: {}}}
      outputs: {bam: {type: File, secondaryFiles: [.bai], outputBinding: {glob: x.bam}}}
  use:
    in: {bam: index/bam}
    out: [made]
    run:
      class: CommandLineTool
      baseCommand: [sh, -c, 'cat "$1" "$1.bai" /proc/sys/kernel/random/uuid', use]
      inputs: {bam: {type: File, secondaryFiles: [.bai], inputBinding: {}}}
      outputs: {made: stdout}
