cwlVersion: v1.2
class: Workflow
doc: A scatter in a scatter; the second sample has no file, so that its inner scatter is empty.
requirements: {ScatterFeatureRequirement: {}, SubworkflowFeatureRequirement: {}}
inputs:
  samples: {type: {type: array, items: {type: array, items: File}}}
  reference: File
outputs:
  each: {type: 'File[]', outputSource: sample/merged}
  all: {type: File, outputSource: report/made}
steps:
  sample: {run: sample.cwl, scatter: reads, in: {reads: samples, reference: reference}, out: [merged]}
  call: {run: one.cwl, scatter: read, in: {read: sample/merged}, out: [made, log]}
  report: {run: stamp.cwl, in: {read: call/log}, out: [made]}
