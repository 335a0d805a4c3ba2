cwlVersion: v1.2
class: Workflow
doc: Inputs that valueFrom computes, defaults, several sources in one input, an array as one result, and files of one content.
requirements: {InlineJavascriptRequirement: {}, StepInputExpressionRequirement: {}, MultipleInputFeatureRequirement: {}, ScatterFeatureRequirement: {}}
inputs: {a: File, b: File, word: {type: string, default: plain}}
outputs:
  all: {type: File, outputSource: join/made}
steps:
  named: {run: stamp.cwl, in: {read: [a, b], note: {source: word, valueFrom: '$(self + "-" + inputs.read.length)'}}, out: [made]}
  copy:
    in: {read: a}
    out: [copy]
    run:
      class: CommandLineTool
      baseCommand: cat
      inputs: {read: {type: File, inputBinding: {}}}
      outputs: {copy: stdout}
  several:
    in: {read: named/made}
    out: [parts]
    run:
      class: CommandLineTool
      baseCommand: [sh, -c, 'for n in 1 2 3; do cat "$1" /proc/sys/kernel/random/uuid > $n.part; done', several]
      inputs: {read: {type: File, inputBinding: {}}}
      outputs: {parts: {type: 'File[]', outputBinding: {glob: '*.part'}}}
  each: {run: one.cwl, scatter: read, in: {read: several/parts, second: copy/copy}, out: [made, log]}
  join: {run: stamp.cwl, in: {read: {source: [each/made, several/parts], linkMerge: merge_flattened}}, out: [made]}
