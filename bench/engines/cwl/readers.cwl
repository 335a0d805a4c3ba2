cwlVersion: v1.2
class: Workflow
doc: A file with several readers; outputs of the run that steps read too; an input that goes out as it came; a step that nothing reads.
requirements: {MultipleInputFeatureRequirement: {}}
inputs: {a: File, b: File, reference: File}
outputs:
  one: {type: File, outputSource: first/made}
  all: {type: File, outputSource: join/made}
  log: {type: File, outputSource: second/log}
  untouched: {type: File, outputSource: b}
steps:
  first: {run: one.cwl, in: {read: a, second: reference}, out: [made, log]}
  second: {run: one.cwl, in: {read: first/made}, out: [made, log]}
  third: {run: one.cwl, in: {read: first/made, second: b}, out: [made, log]}
  alone: {run: one.cwl, in: {read: reference}, out: [made, log]}
  join: {run: stamp.cwl, in: {read: [second/made, third/made]}, out: [made]}
