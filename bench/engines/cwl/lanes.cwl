cwlVersion: v1.2
class: Workflow
doc: A workflow that is scattered, and a step that reads what all of its runs made.
requirements: {ScatterFeatureRequirement: {}, SubworkflowFeatureRequirement: {}}
inputs: {reads: 'File[]', reference: File}
outputs:
  merged: {type: File, outputSource: merge/made}
  logs: {type: 'File[]', outputSource: lane/log}
steps:
  lane: {run: lane.cwl, scatter: read, in: {read: reads, reference: reference}, out: [made, log]}
  merge: {run: stamp.cwl, in: {read: lane/made}, out: [made]}
