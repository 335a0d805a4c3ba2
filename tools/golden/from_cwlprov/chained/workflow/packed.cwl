{
 "class": "Workflow",
 "requirements": [
  {
   "class": "InlineJavascriptRequirement"
  },
  {
   "class": "MultipleInputFeatureRequirement"
  },
  {
   "class": "ScatterFeatureRequirement"
  },
  {
   "class": "StepInputExpressionRequirement"
  },
  {
   "class": "SubworkflowFeatureRequirement"
  }
 ],
 "inputs": [
  {
   "type": "string",
   "id": "#main/note"
  },
  {
   "type": {
    "type": "array",
    "items": "File"
   },
   "id": "#main/reads"
  },
  {
   "type": "File",
   "id": "#main/ref"
  }
 ],
 "steps": [
  {
   "scatter": "#main/count/sorted",
   "in": [
    {
     "source": "#main/ref",
     "id": "#main/count/ref"
    },
    {
     "source": "#main/sort/sorted",
     "id": "#main/count/sorted"
    }
   ],
   "out": [
    "#main/count/counted"
   ],
   "run": {
    "class": "CommandLineTool",
    "baseCommand": "cat",
    "inputs": [
     {
      "type": "File",
      "inputBinding": {
       "position": 2
      },
      "id": "#main/count/run/ref"
     },
     {
      "type": "File",
      "inputBinding": {
       "position": 1
      },
      "id": "#main/count/run/sorted"
     }
    ],
    "stdout": "$(inputs.sorted.nameroot).counted",
    "outputs": [
     {
      "type": "File",
      "id": "#main/count/run/counted",
      "outputBinding": {
       "glob": "$(inputs.sorted.nameroot).counted"
      }
     }
    ]
   },
   "id": "#main/count"
  },
  {
   "in": [
    {
     "source": "#main/note",
     "id": "#main/merge/note"
    },
    {
     "source": "#main/count/counted",
     "id": "#main/merge/parts"
    }
   ],
   "out": [
    "#main/merge/merged"
   ],
   "run": {
    "class": "CommandLineTool",
    "baseCommand": "cat",
    "inputs": [
     {
      "type": "string",
      "id": "#main/merge/run/note"
     },
     {
      "type": {
       "type": "array",
       "items": "File"
      },
      "inputBinding": {
       "position": 1
      },
      "id": "#main/merge/run/parts"
     }
    ],
    "stdout": "merged.txt",
    "outputs": [
     {
      "type": "File",
      "id": "#main/merge/run/merged",
      "outputBinding": {
       "glob": "merged.txt"
      }
     }
    ]
   },
   "id": "#main/merge"
  },
  {
   "scatter": "#main/sort/plain",
   "in": [
    {
     "source": "#main/reads",
     "id": "#main/sort/plain"
    }
   ],
   "out": [
    "#main/sort/sorted"
   ],
   "run": {
    "class": "CommandLineTool",
    "baseCommand": "sort",
    "inputs": [
     {
      "type": "File",
      "inputBinding": {
       "position": 1
      },
      "id": "#main/sort/run/plain"
     }
    ],
    "stdout": "$(inputs.plain.nameroot).sorted",
    "outputs": [
     {
      "type": "File",
      "id": "#main/sort/run/sorted",
      "outputBinding": {
       "glob": "$(inputs.plain.nameroot).sorted"
      }
     }
    ]
   },
   "id": "#main/sort"
  }
 ],
 "id": "#main",
 "outputs": [
  {
   "type": {
    "type": "array",
    "items": "File"
   },
   "outputSource": "#main/count/counted",
   "id": "#main/counts"
  },
  {
   "type": "File",
   "outputSource": "#main/merge/merged",
   "id": "#main/merged"
  }
 ],
 "cwlVersion": "v1.2"
}