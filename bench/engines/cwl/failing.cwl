cwlVersion: v1.2
class: Workflow
doc: A step that fails behind one that does not, beside steps that go on, and a step that reads what it would have made.
requirements: {ScatterFeatureRequirement: {}}
inputs: {a: File, reads: 'File[]'}
outputs:
  each: {type: 'File[]', outputSource: map/made}
  end: {type: File, outputSource: last/made}
steps:
  first: {run: one.cwl, in: {read: a}, out: [made, log]}
  broken:
    in: {read: first/made}
    out: [made]
    run:
      class: CommandLineTool
      baseCommand: [sh, -c, 'echo begun; exit 3']
      inputs: {read: File}
      outputs: {made: stdout}
  map: {run: one.cwl, scatter: read, in: {read: reads, second: first/log}, out: [made, log]}
  last: {run: one.cwl, in: {read: broken/made}, out: [made, log]}
